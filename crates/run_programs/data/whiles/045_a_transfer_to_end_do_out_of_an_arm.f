      DO WHILE (I.LT.9)
      I=I+1
      IF (I.GT.4) THEN
      IF (I.EQ.7) GO TO 10
      J=J+I
      ELSE
      J=J-1
      END IF
      K=K+1
   10 END DO
      WRITE (6,20) I,J,K
   20 FORMAT (3I4)
      END
