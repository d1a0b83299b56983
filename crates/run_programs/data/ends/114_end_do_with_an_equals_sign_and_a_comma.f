      DO I=1,2
      END DO=1,2
      END
