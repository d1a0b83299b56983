      DO 10 I=1,LAST(3)
   10 CONTINUE
      END
