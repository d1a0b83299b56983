      DO 20 I=1,3
      DO 10 J=1,9
      K=K+1
      IF (K.EQ.14) GO TO 30
   10 CONTINUE
   20 WRITE (6,40) I,K
   30 WRITE (6,40) J,K
   40 FORMAT (2I3)
      END
