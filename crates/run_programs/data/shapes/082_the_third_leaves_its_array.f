      INTEGER A(40),B(40),C(20)
      DO 10 I=1,40
      A(I)=I
      B(I)=A(I)*2
      C(I+1)=B(I)
   10 CONTINUE
      END
