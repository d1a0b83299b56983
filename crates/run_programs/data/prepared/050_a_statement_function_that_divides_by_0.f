      IMPLICIT INTEGER (A-Z)
      F(X)=10/(5-X)
      DO 20 I=1,5
      K=K+F(I)
   20 CONTINUE
      END
