      I=1
      IF (I.EQ.1) CONTINUE
   10 CONTINUE
      END
