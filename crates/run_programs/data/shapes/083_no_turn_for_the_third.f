C TURNS 43
      INTEGER A(40),B(40),C(40)
      DO I=1,40
      A(I)=I
      B(I)=A(I)*2
      C(I)=B(I)
      END DO
      END
