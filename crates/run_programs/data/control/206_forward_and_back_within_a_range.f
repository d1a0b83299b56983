      DO 30 I=1,2
      J=0
   10 J=J+1
      IF (J.GT.I) GO TO 20
      GO TO 10
   20 K=K+J
   30 CONTINUE
      WRITE (6,40) K
   40 FORMAT (I2)
      END
