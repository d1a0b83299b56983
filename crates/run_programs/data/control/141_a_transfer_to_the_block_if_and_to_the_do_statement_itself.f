C TURNS 24
   10 IF (I.EQ.1) THEN
      GO TO 10
      END IF
   20 DO 30 J=1,2
      IF (J.GT.I) GO TO 20
   30 CONTINUE
      END
