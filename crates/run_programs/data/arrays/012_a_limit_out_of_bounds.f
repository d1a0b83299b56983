      INTEGER A(2)
      DO 10 I=1,A(3)
   10 CONTINUE
      END
