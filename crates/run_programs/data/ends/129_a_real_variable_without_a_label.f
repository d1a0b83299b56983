      DO X=1,2
      END DO
      END
