      INTEGER A(60)
      K=25
      DO 20 I=1,60
      A(K)=I
      K=K+1
   20 CONTINUE
      END
