      DO 30 N=2,500
      K=1
      DO 10 I=2,N/2
      IF (MOD(N,I).NE.0) GO TO 10
      K=K+I
   10 CONTINUE
      IF (K.NE.N) GO TO 30
      WRITE (6,20) N
   20 FORMAT (I6)
   30 CONTINUE
      END
