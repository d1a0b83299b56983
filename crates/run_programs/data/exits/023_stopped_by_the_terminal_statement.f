      WRITE (6,20) 1
      DO 10 I=1,12
   10 IF (I.EQ.5) STOP
      WRITE (6,20) I
   20 FORMAT (I3)
      END
