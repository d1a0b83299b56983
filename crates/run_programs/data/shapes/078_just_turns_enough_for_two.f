C TURNS 81
      INTEGER A(40),B(40)
      DO 10 I=1,40
      A(I)=I
   10 B(I)=A(I)-1
      END
