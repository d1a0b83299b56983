      DO 10 I=1,3
   10 I=1
   10 J=1
      END
