      LOGICAL L
      L=.TRUE.
      IF (L) I=3
      IF (.NOT.L) I=4
      IF (I.EQ.3.AND.L) WRITE (6,20) I
      IF (L) PRINT 20,I+1
      IF (L) CONTINUE
      IF (L) GO TO (10) I-2
      WRITE (6,20) 9
   10 IF (I.GT.5) WRITE (6,20) 8
      IF (L) IF (I) 30,30,40
   30 WRITE (6,20) 7
   40 WRITE (6,20) 6
   20 FORMAT (I2)
      END
