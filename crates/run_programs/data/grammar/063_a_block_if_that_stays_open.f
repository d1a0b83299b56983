      IF (I.EQ.1) THEN
      END
