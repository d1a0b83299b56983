      J=7
      WRITE (6,10) (J,I=1,65534),I/K
   10 FORMAT (I1)
      END
