      I=1
      IF (I.EQ.1) GO TO (10) I
   10 CONTINUE
      END
