      GO TO 10
   10 FORMAT (I3)
      END
