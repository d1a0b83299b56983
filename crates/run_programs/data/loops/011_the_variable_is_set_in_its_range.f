      DO 10 I=1,3
      I=I+1
   10 CONTINUE
      END
