      I=1
      IF (I.EQ.0) THEN
      K=1
      ELSE IF (I/J.EQ.1) THEN
      K=2
      ELSE
      K=3
      END IF
      END
