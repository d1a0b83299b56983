      INTEGER A(3),B(3)
      DATA A/2,46341,1/,B/3,46341,1/
      DO 10 I=1,3
   10 K=K+A(I)*B(I)
      END
