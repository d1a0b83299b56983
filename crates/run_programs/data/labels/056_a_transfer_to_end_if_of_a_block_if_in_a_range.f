      GO TO 20
      DO 10 I=1,3
      IF (I.EQ.2) THEN
      J=1
   20 END IF
   10 CONTINUE
      END
