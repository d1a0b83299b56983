      DO 10 I=1.5
   10 CONTINUE
      END
