      DO I=1,2
      DO I=1,2
      END DO
      END DO
      END
