   10 FORMAT (A5)
      END
