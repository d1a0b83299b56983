      I=2147483647
      DO 10 J=1,I+1,0
   10 CONTINUE
      END
