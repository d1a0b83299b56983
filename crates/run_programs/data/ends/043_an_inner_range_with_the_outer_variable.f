      DO I10=1,3
      DO 10 I10=1,2
   10 END DO
      END DO
      END
