      INTEGER A(3)
      DO 10 A=1,3
   10 CONTINUE
      END
