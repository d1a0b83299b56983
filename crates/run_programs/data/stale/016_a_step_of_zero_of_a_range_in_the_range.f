      DO 20 I=1,9
      DO 10 J=1,3,5-I
   10 K=J
   20 CONTINUE
      END
