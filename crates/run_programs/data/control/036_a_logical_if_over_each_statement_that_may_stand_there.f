      INTEGER A(2)
      DO 50 I=1,8
      IF (I.EQ.1) K=7
      IF (I.EQ.2) A(I)=K
      IF (I.EQ.3) WRITE (6,60) I,A
      IF (I.EQ.4) PRINT 60,I,K
      IF (I.EQ.5) CONTINUE
      IF (I.EQ.6) GO TO 40
      IF (I.EQ.7) GO TO (30,40),I-6
      IF (I.EQ.8) IF (I-7) 30,30,20
      GO TO 50
   20 WRITE (6,60) I,20
      GO TO 50
   30 WRITE (6,60) I,30
      GO TO 50
   40 WRITE (6,60) I,40
   50 CONTINUE
      IF (I.EQ.9) STOP
      WRITE (6,60) 99
   60 FORMAT (3I4)
      END
