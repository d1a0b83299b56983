      I=4
      DO WHILE (.TRUE.)
      I=I-1
      J=60/I
      WRITE (6,10) J
      END DO
   10 FORMAT (I4)
      END
