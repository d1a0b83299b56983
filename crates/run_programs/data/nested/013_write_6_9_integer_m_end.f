      WRITE(6,9)
      INTEGER M
      END
