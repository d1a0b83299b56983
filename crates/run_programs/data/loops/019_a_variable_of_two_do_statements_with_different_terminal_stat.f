      DO 20 I=1,3
      DO 10 I=1,3
   10 CONTINUE
   20 CONTINUE
      END
