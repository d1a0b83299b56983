C TURNS 2
      IF (I.EQ.1) THEN
      J=1
      ELSE IF (I/J.EQ.1) THEN
      J=2
      END IF
      END
