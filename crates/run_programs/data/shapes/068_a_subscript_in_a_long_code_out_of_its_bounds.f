      INTEGER A(40),B(40),P(40)
      DO 5 I=1,40
    5 P(I)=I+2
      DO 10 I=1,40
   10 B(I)=B(I)+A(I)+A(P(I))+A(I)-1
      END
