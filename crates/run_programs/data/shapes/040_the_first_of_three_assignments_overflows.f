      INTEGER A(20)
      K=2147483000
      DO 10 I=1,20
      K=K+50
      A(I)=I
   10 L=A(I)+K/2
      END
