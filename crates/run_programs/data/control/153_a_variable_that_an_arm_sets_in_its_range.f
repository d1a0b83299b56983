      DO 10 I=1,3
      IF (I.EQ.2) THEN
      I=3
      END IF
   10 CONTINUE
      END
