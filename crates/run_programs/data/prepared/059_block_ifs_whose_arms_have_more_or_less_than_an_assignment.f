      IMPLICIT INTEGER (A-Z)
      INTEGER A(9)
      DO 40 I=1,9
      IF (I.EQ.1) THEN
      ELSE
      A(I)=A(I-1)+I
      END IF
      IF (I.EQ.2) THEN
      K=K+1
      L=L+K
      ELSE
      K=K+2
      END IF
      IF (I.GT.3) THEN
      IF (I.GT.5) THEN
      M=M+1
      ELSE
      M=M-1
      END IF
      END IF
      IF (I.EQ.6) THEN
      GO TO 30
      ELSE
      N=N+I
      END IF
      IF (I.EQ.7) THEN
      DO 10 J=1,3
   10 N=N+J
      ELSE IF (I.EQ.8) THEN
   20 N=N+100
      ELSE
      IF (I.EQ.9) N=-N
      END IF
   30 N=N+1
   40 CONTINUE
      WRITE (6,50) A,I,J,K,L,M,N
   50 FORMAT (9I6)
      END
