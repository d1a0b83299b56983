      DO 10 I=1,3,0
   10 J=1
      END
