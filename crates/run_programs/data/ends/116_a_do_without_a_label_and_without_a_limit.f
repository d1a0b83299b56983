      DO I=1,
      END DO
      END
