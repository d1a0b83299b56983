   10 DO WHILE (I.LT.8)
      I=I+1
      IF (MOD(I,3).EQ.0) GO TO 10
      J=J+I
      END DO
      WRITE (6,20) I,J
   20 FORMAT (2I4)
      END
