      IF (I.EQ.1) THEN
      GO TO 10
      ELSE IF (I.EQ.2) THEN
      DO 5 J=1,3
      IF (J.EQ.2) GO TO 20
    5 CONTINUE
      ELSE
      GO TO 30
   10 END IF
   20 I=1
   30 CONTINUE
      END
