      DO 10 I=1,3
   10 I=I+1
      END
