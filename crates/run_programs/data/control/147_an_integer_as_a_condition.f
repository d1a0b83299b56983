      IF (I) J=1
      END
