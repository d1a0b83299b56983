      IMPLICIT INTEGER (A-Z)
      INTEGER B(0:2,2,-1:1,2,2:4,2,3)
      J=2
      K=1
      N=0
      DO 10 I=1,3
      B(I-1,J,K-2,J-1,I+1,K,I)=I
   10 CONTINUE
      DO 20 I=1,3
      N=N+B(I-1,J,K-2,J-1,I+1,K,I)
      IF (N.LT.6) GO TO 20
      N=N+B(K-1,J,K-2,J-1,I+2,K,J)
   20 CONTINUE
      END
