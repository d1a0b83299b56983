      DO 20 I=1,3
      J=0
   10 J=J+I
      IF (J.LT.10) GO TO 10
   20 WRITE (6,30) I,J
   30 FORMAT (2I4)
      END
