   10 FORMAT (2'AB')
      END
