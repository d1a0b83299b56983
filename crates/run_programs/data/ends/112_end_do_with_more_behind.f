      DO 10 I=1,2
   10 END DO 10
      END
