  1 0 FORMAT (2I3)
0020  I=4
      WRITE (6,00010) I,-I
      END
