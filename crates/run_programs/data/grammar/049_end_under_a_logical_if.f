      IF (I) END
      END
