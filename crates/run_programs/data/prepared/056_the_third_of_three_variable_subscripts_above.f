      IMPLICIT INTEGER (A-Z)
      INTEGER A(2,-1:1,3)
      J=2
      K=0
      DO 10 I=1,4
      A(J-1,K+1,I)=I
   10 CONTINUE
      END
