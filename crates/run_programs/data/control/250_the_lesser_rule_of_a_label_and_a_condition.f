      IF (I) GO TO 20
      END
