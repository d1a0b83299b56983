C TURNS 14
C     STOP WANTS THE 15TH TURN.
   10 DO WHILE (I.LT.3)
      I=I+1
      IF (I.NE.2) GO TO 10
      J=J+1
      GO TO 10
      END DO
      STOP
      END
