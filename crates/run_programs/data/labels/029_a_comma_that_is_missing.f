   10 FORMAT (I3 I3)
      END
