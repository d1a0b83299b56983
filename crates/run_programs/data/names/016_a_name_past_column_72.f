      I=1
      J=I+2                                                             +X
      WRITE (6,10) J
   10 FORMAT (I3)
      END
