      DO I=1,2
      INTEGER J
      END DO
      END
