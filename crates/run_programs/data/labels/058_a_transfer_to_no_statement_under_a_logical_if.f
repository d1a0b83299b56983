      I=1
      IF (I.EQ.2) GO TO (10,20),I
   10 I=2
      END
