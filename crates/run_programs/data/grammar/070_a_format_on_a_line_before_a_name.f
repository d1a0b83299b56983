   10 FORMAT (I5,A5)
      X=1
      END
