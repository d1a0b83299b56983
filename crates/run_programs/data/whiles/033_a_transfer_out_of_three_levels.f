      DO WHILE (I.LT.100)
      I=I+1
      DO J=1,I
      K=0
      DO WHILE (K.LT.J)
      K=K+1
      IF (I*J*K.EQ.96) GO TO 10
      END DO
      END DO
      END DO
   10 WRITE (6,20) I,J,K
   20 FORMAT (3I4)
      END
