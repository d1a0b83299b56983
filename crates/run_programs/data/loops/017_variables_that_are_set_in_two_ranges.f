      DO 10 I=1,3
   10 I=1
      DO 20 J=1,3
   20 J=1
      END
