   10 FORMAT (I3,())
      END
