      K=1
   10 DO 20 I=1,K
   20 J=J+1
      K=K+1
      IF (K.LT.4) GO TO 10
      WRITE (6,30) I,J,K
   30 FORMAT (3I3)
      END
