      IF (I.EQ.1) THEN
      J=1
      ELSE IF (J.EQ.1) THEN
      J=2
      ELSE IF (1/I.EQ.0) THEN
      J=3
      END IF
      END
