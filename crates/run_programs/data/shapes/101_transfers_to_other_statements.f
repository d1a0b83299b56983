      INTEGER A(60),B(60)
      DO 10 I=1,60
   10 A(I)=MOD(I*37,61)
      DO 20 I=1,60
      IF (A(I).LT.30) GO TO 15
      B(I)=A(I)
   15 B(I)=B(I)+1
   20 CONTINUE
      DO 30 I=1,60
      IF (A(I).LT.20) GO TO 30
      B(I)=B(I)+2
   30 A(I)=A(I)-1
      DO 40 I=1,60
      IF (A(I).EQ.50) GO TO 45
      B(I)=B(I)+4
   40 CONTINUE
   45 K=I
      DO 60 I=1,60
      J=I
   50 IF (A(J).GT.40) GO TO 60
      J=J+1
      IF (J.LE.60) GO TO 50
   60 CONTINUE
      WRITE (6,9) I,J,K
      WRITE (6,9) A
      WRITE (6,9) B
    9 FORMAT (12I6)
      END
