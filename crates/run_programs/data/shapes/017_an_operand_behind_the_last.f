      INTEGER A(5),B(5)
      DO 10 I=1,5
   10 A(I)=B(I+1)
      END
