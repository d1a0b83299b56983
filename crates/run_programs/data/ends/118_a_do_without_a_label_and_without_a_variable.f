      DO 10=1,2
   10 END DO
      END
