C TURNS 31
      INTEGER A(20),B(20)
      DO 10 I=1,20
      A(I)=I
   10 B(I)=A(I)
      END
