      DO 10 I=1,3
   10 I=J(1)
      END
