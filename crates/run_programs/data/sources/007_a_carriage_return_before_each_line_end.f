   10 FORMAT (I1)
      WRITE (6,10) N
      END
