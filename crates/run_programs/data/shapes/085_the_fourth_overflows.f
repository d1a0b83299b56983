      INTEGER A(40),B(40)
      K=3
      DO 10 I=1,40
      A(I)=K
      B(I)=A(I)-1
      L=B(I)+I
      K=K*3
   10 CONTINUE
      END
