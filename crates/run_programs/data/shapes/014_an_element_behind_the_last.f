      INTEGER A(10)
      DO 10 I=1,11
   10 A(I)=1
      END
