      DO 10 WHILE (I.LT.3)
      IF (I.EQ.1) THEN
   10 I=I+1
      END IF
      END
