      DO WHILE (I.LT.9)
      I=I+1
      IF (MOD(I,3).EQ.1) GO TO 10
      J=J+I
   10 END DO
      WRITE (6,20) I,J
   20 FORMAT (2I4)
      END
