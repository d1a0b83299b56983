      IF (I.EQ.0) THEN
      DO 5 J=1,9
      IF (J.EQ.4) GO TO 10
    5 K=K+J
      K=100
   10 END IF
      WRITE (6,20) J,K
   20 FORMAT (2I4)
      END
