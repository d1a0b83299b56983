      I=1
      IF (I.EQ.1) STOP 00001
   10 CONTINUE
      END
