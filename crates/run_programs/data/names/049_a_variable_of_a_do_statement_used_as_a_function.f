      DO 10 MAX0=1,2
   10 I=MAX0(1,2)
      END
