   10 FORMAT (I0)
      END
