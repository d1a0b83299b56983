      DO 30 I=1,3
      IF (I.EQ.1) THEN
      DO 10 J=1,3
      IF (J.EQ.2) THEN
      K=K+1
      ELSE
      IF (J.EQ.3) THEN
      K=K+10
      END IF
      K=K+100
      END IF
   10 CONTINUE
      ELSE
      IF (I.EQ.2) THEN
      K=K+1000
      ELSE
      DO 20 J=1,2
   20 K=K+10000
      END IF
      END IF
   30 WRITE (6,40) I,J,K
   40 FORMAT (2I3,I7)
      END
