      DO WHILE (.TRUE.)
      I=I+1
      WRITE (6,10) I
      IF (I.EQ.3) STOP
      END DO
   10 FORMAT (I4)
      END
