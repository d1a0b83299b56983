      I=1
      IF (I.EQ.1) J=2
   10 CONTINUE
      END
