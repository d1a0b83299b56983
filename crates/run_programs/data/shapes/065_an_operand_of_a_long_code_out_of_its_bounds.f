      INTEGER A(40),B(40)
      DO 10 I=1,40
   10 B(I)=A(I)+A(I+1)+A(I+4)-3*B(I)
      END
