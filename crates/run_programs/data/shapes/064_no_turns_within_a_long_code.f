C TURNS 12
      INTEGER A(40)
      DO 10 I=3,40
   10 A(I)=A(I)+A(I-1)+A(I-2)+2*I-7
      END
