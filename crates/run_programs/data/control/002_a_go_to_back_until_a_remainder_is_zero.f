      I=1071
      J=462
   10 K=MOD(I,J)
      IF (K.EQ.0) GO TO 20
      I=J
      J=K
      GO TO 10
   20 WRITE (6,30) J
   30 FORMAT (I4)
      END
