      DO 10 I=0,3
      IF (I.GE.2) THEN
      IF (I.EQ.3) THEN
      K=33
      ELSE
      K=22
      END IF
      ELSE
      IF (I.EQ.0) K=0
      IF (I.EQ.1) THEN
      K=11
      END IF
      END IF
   10 WRITE (6,20) K
   20 FORMAT (I3)
      END
