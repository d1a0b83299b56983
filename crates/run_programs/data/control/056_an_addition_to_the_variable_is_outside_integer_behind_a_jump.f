      K=2147483646
      DO 10 I=K,2147483647
      IF (I.EQ.K) GO TO 10
      J=1
   10 WRITE (6,20) I,J
   20 FORMAT (I11,I2)
      END
