      IF (N.EQ.0) THEN
      DO 10 I=1,9
      IF (I.EQ.5) GO TO 20
   10 N=N+I
      N=100
   20 END IF
      WRITE (6,30) I,N
   30 FORMAT (2I3)
      END
