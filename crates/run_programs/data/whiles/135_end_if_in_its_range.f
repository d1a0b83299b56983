      IF (I.EQ.0) THEN
      DO WHILE (I.LT.3)
      I=I+1
      END IF
      END DO
      END
