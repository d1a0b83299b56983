      DO 10 I=1,100
      IF (MOD(K,3).NE.1) K=K+1
   10 K=K+I
      WRITE (6,20) K,I
      DO 15 I=100,1,-1
      IF (MOD(L,4).GE.2) L=L-I
      IF (MOD(L,4).LT.2) L=L+3
   15 CONTINUE
   20 FORMAT (2I9)
      WRITE (6,20) L,I
      END
