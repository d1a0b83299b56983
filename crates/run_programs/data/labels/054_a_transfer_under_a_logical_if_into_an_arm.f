      IF (I.EQ.1) THEN
      J=1
   10 J=J+1
      END IF
      IF (J.LT.9) GO TO 10
      END
