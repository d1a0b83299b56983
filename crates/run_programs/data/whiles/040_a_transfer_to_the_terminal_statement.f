      DO 10 WHILE (I.LT.9)
      J=J+1
      IF (MOD(J,4).NE.0) GO TO 10
      J=J+I
   10 I=I+2
      WRITE (6,20) I,J
   20 FORMAT (2I4)
      END
