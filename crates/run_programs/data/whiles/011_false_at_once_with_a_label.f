      I=7
      DO 20 WHILE (I.LT.5)
      J=1
   20 J=J+1
      DO 30 WHILE (J.NE.0)
   30 WRITE (6,10) J
      WRITE (6,10) I,J
   10 FORMAT (2I4)
      END
