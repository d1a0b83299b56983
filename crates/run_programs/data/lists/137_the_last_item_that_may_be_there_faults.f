      WRITE (6,10) (1/(65535-I),I=1,65536)
   10 FORMAT (I1)
      END
