      IMPLICIT INTEGER (A-Z)
      INTEGER A(12),B(12,12),P(12)
      LOGICAL L(12),M
      DO 10 I=1,12
   10 P(I)=13-I
      DO 20 I=1,12
      IF (MOD(I,2).EQ.0) THEN
      N=N+I
      ELSE
      N=N-1
      END IF
      IF (I.GT.6) THEN
      A(I)=N
      END IF
      IF (I.LT.3) THEN
      A(I)=I
      ELSE IF (I.LT.6) THEN
      B(I,I)=2*I
      ELSE IF (I.EQ.7) THEN
      A(P(I))=70
      ELSE IF (I.EQ.8) THEN
      B(P(I),I-1)=A(I)
      END IF
      IF (I.EQ.4) THEN
      A(P(I))=-4
      ELSE IF (I.LE.9) THEN
      K=K+A(I)
      ELSE
      A(P(I)+1)=A(I)
      END IF
      IF (I.EQ.1) THEN
      B(I,P(I))=1
      ELSE
      B(I,P(I))=B(I-1,P(I)+1)+1
      END IF
      IF (A(I).GT.0) THEN
      L(I)=.TRUE.
      ELSE
      L(I)=I.EQ.4.OR.M
      END IF
      IF (L(I)) THEN
      M=.NOT.M
      END IF
      IF (M) THEN
      J=J+1
      ELSE IF (.NOT.L(I)) THEN
      J=J+10
      ELSE
      J=J+100
      END IF
   20 CONTINUE
      IF (J.EQ.0) THEN
      J=1
      ELSE
      J=J+1000
      END IF
      WRITE (6,30) I,J,K,N
      WRITE (6,30) A,P,B
      WRITE (6,40) L,M
   30 FORMAT (12I6)
   40 FORMAT (13L3)
      END
