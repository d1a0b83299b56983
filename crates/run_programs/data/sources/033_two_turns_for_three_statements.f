C TURNS 2
      I=3
      J=2-I*4
      WRITE (6,10) I,J
   10 FORMAT (2I4)
      END
