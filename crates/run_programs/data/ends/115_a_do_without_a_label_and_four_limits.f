      DO I=1,2,3,4
      END DO
      END
