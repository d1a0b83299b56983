      INTEGER A(9)
      K=0
   10 K=K+1
      I=1
      DO WHILE (I.LE.9)
      A(I)=A(I)+K
      IF (A(I).EQ.3) GO TO 10
      I=I+K
      END DO
      WRITE (6,20) I,K,A
   20 FORMAT (11I3)
      END
