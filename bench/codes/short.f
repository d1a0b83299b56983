C     A LOOP OF 8 TRIPS, REACHED 10000 TIMES.
      INTEGER A(8)
      K=0
   10 K=K+1
      DO 20 I=1,8
   20 A(I)=A(I)+MOD(I*K,7)
      IF (K.LT.10000) GO TO 10
      WRITE (6,30) A
   30 FORMAT (8I8)
      END
