      DO I=1,2
      END DO I
      END
