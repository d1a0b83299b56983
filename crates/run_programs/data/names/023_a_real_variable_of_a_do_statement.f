      DO 10 X=1,3
   10 CONTINUE
      END
