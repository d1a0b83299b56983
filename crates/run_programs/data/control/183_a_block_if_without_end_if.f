      IF (I.EQ.1) THEN
      I=2
      END
