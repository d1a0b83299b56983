      I=1
      DO 10 WHILE (1)
   10 I=I+1
      END
