      IMPLICIT INTEGER (A-Z)
      INTEGER A(9),B(9,9),P(9)
      LOGICAL L(9),M,O
      M=.TRUE.
      DO 10 I=1,9
      A(I)=7
      P(10-I)=I
      B(I,4)=-3
      B(I,I)=I
      L(I)=.TRUE.
      O=M
      L(P(10-I))=O
      K=I+1
      N=K-I
      J=I
      A(I)=-2147483647
      IF (I.GT.4) A(I)=J
      IF (J.EQ.I) A(P(10-I))=4
      IF (I.LT.3) THEN
      A(I)=0
      ELSE IF (I.LT.5) THEN
      A(I)=N
      ELSE
      A(I)=K
      END IF
   10 M=.FALSE.
      A(3)=12
      A(J)=J
      WRITE (6,20) A,P,B,J,K,N
      WRITE (6,30) L,M,O
   20 FORMAT (9I12)
   30 FORMAT (11L3)
      END
