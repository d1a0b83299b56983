      IF (1/I.EQ.0) GO TO 10
   10 CONTINUE
      END
