      INTEGER A(5)
      DATA A/2,3,4,5,6/
      K=1
      DO 10 I=1,9
   10 K=A(K)
      END
