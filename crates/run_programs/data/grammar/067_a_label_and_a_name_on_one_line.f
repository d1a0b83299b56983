      IF (X) GO TO 10
      END
