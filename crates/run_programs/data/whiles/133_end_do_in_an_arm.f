      DO WHILE (I.LT.3)
      IF (I.EQ.1) THEN
      I=I+1
      END DO
      END IF
      END
