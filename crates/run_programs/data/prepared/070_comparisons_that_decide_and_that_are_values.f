      IMPLICIT INTEGER (A-Z)
      INTEGER A(-3:3),N(6)
      LOGICAL L(6),M
      J=1
      DO 10 I=-3,3
   10 A(I)=I*I-2*I
      DO 90 I=-2,2
      IF (I.LT.0) N(1)=N(1)+1
      IF (I.LT.J) GO TO 20
      N(1)=N(1)+10
   20 IF (A(I).LT.3) GO TO 21
      N(1)=N(1)+100
   21 IF (A(I).LT.A(-I)) GO TO 22
      N(1)=N(1)+1000
   22 IF (I.LT.-1) THEN
      K=K+1
      ELSE IF (J.LT.I) THEN
      K=K+10
      ELSE IF (A(I).LT.I) THEN
      K=K+100
      ELSE IF (A(I+1).LT.A(I)) THEN
      K=K+1000
      END IF
      L(1)=I.LT.J
      M=I.LT.0.AND.A(I).LT.J.OR..NOT.(J.LT.I)
      IF (M) N(1)=N(1)+10000
      IF (.NOT.(I.LT.2)) N(1)=N(1)+100000
      IF (I.LE.0) N(2)=N(2)+1
      IF (I.LE.J) GO TO 30
      N(2)=N(2)+10
   30 IF (A(I).LE.3) GO TO 31
      N(2)=N(2)+100
   31 IF (A(I).LE.A(-I)) GO TO 32
      N(2)=N(2)+1000
   32 IF (I.LE.-1) THEN
      K=K+1
      ELSE IF (J.LE.I) THEN
      K=K+10
      ELSE IF (A(I).LE.I) THEN
      K=K+100
      ELSE IF (A(I+1).LE.A(I)) THEN
      K=K+1000
      END IF
      L(2)=I.LE.J
      M=I.LE.0.AND.A(I).LE.J.OR..NOT.(J.LE.I)
      IF (M) N(2)=N(2)+10000
      IF (.NOT.(I.LE.2)) N(2)=N(2)+100000
      IF (I.EQ.0) N(3)=N(3)+1
      IF (I.EQ.J) GO TO 40
      N(3)=N(3)+10
   40 IF (A(I).EQ.3) GO TO 41
      N(3)=N(3)+100
   41 IF (A(I).EQ.A(-I)) GO TO 42
      N(3)=N(3)+1000
   42 IF (I.EQ.-1) THEN
      K=K+1
      ELSE IF (J.EQ.I) THEN
      K=K+10
      ELSE IF (A(I).EQ.I) THEN
      K=K+100
      ELSE IF (A(I+1).EQ.A(I)) THEN
      K=K+1000
      END IF
      L(3)=I.EQ.J
      M=I.EQ.0.AND.A(I).EQ.J.OR..NOT.(J.EQ.I)
      IF (M) N(3)=N(3)+10000
      IF (.NOT.(I.EQ.2)) N(3)=N(3)+100000
      IF (I.NE.0) N(4)=N(4)+1
      IF (I.NE.J) GO TO 50
      N(4)=N(4)+10
   50 IF (A(I).NE.3) GO TO 51
      N(4)=N(4)+100
   51 IF (A(I).NE.A(-I)) GO TO 52
      N(4)=N(4)+1000
   52 IF (I.NE.-1) THEN
      K=K+1
      ELSE IF (J.NE.I) THEN
      K=K+10
      ELSE IF (A(I).NE.I) THEN
      K=K+100
      ELSE IF (A(I+1).NE.A(I)) THEN
      K=K+1000
      END IF
      L(4)=I.NE.J
      M=I.NE.0.AND.A(I).NE.J.OR..NOT.(J.NE.I)
      IF (M) N(4)=N(4)+10000
      IF (.NOT.(I.NE.2)) N(4)=N(4)+100000
      IF (I.GE.0) N(5)=N(5)+1
      IF (I.GE.J) GO TO 60
      N(5)=N(5)+10
   60 IF (A(I).GE.3) GO TO 61
      N(5)=N(5)+100
   61 IF (A(I).GE.A(-I)) GO TO 62
      N(5)=N(5)+1000
   62 IF (I.GE.-1) THEN
      K=K+1
      ELSE IF (J.GE.I) THEN
      K=K+10
      ELSE IF (A(I).GE.I) THEN
      K=K+100
      ELSE IF (A(I+1).GE.A(I)) THEN
      K=K+1000
      END IF
      L(5)=I.GE.J
      M=I.GE.0.AND.A(I).GE.J.OR..NOT.(J.GE.I)
      IF (M) N(5)=N(5)+10000
      IF (.NOT.(I.GE.2)) N(5)=N(5)+100000
      IF (I.GT.0) N(6)=N(6)+1
      IF (I.GT.J) GO TO 70
      N(6)=N(6)+10
   70 IF (A(I).GT.3) GO TO 71
      N(6)=N(6)+100
   71 IF (A(I).GT.A(-I)) GO TO 72
      N(6)=N(6)+1000
   72 IF (I.GT.-1) THEN
      K=K+1
      ELSE IF (J.GT.I) THEN
      K=K+10
      ELSE IF (A(I).GT.I) THEN
      K=K+100
      ELSE IF (A(I+1).GT.A(I)) THEN
      K=K+1000
      END IF
      L(6)=I.GT.J
      M=I.GT.0.AND.A(I).GT.J.OR..NOT.(J.GT.I)
      IF (M) N(6)=N(6)+10000
      IF (.NOT.(I.GT.2)) N(6)=N(6)+100000
   90 WRITE (6,91) I,K,N,L,M
   91 FORMAT (8I9,7L2)
      END
