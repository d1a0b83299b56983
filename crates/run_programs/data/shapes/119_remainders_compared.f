      INTEGER V(8)
      LOGICAL Q
      DATA V/0,1,-1,6,-7,2147483647,-2147483647,1073741824/
      V(4)=-2147483647-1
      DO 10 I=-40,40
   10 IF (MOD(I,7).EQ.-3) J1=J1+1
      DO 20 I=-40,40
   20 IF (MOD(I,8).NE.0) J2=J2+1
      DO 30 I=-40,40
   30 IF (MOD(I,7).LT.-1) J3=J3+1
      DO 40 I=-40,40
   40 IF (MOD(I,8).LE.-1) J4=J4+1
      DO 50 I=-40,40
   50 IF (MOD(I,7).GE.4) J5=J5+1
      DO 60 I=-40,40
   60 IF (MOD(I,8).GT.4) J6=J6+1
      WRITE (6,100) J1,J2,J3,J4,J5,J6
      DO 80 L=1,8
      N=V(L)
      IF (MOD(N,2).EQ.0) GO TO 70
      IF (MOD(N,8).EQ.-7) THEN
      K=K+1
      ELSE IF (MOD(N,2147483647).EQ.0) THEN
      K=K+10
      ELSE
      K=K+100
      END IF
   70 IF (MOD(N,3).GE.1) K=K+1000
      Q=MOD(N,4).NE.0
      IF (Q) K=K+10000
      IF (MOD(N,-3).EQ.1) K=K+100000
      WRITE (6,100) N,MOD(N,1),K
   80 CONTINUE
      DO WHILE (MOD(N,5).NE.0)
      N=N+1
      END DO
      WRITE (6,100) N
  100 FORMAT (6I12)
      END
