      DO 20 I=1,12
      K=I-7
      IF (MOD(K,2).NE.0) GO TO 10
      L=L+1
   10 IF (MOD(L,0).EQ.3) K=1
   20 CONTINUE
      END
