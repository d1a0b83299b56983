      I=65536
      WRITE (6,10) I*(-32768)
   10 FORMAT (I11)
      END
