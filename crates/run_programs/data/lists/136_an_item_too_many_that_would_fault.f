      WRITE (6,10) (1/(65536-I),I=1,65536)
   10 FORMAT (I1)
      END
