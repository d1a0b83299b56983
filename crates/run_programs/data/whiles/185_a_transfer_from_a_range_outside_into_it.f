      DO WHILE (I.LT.3)
      I=I+1
      IF (I.EQ.2) GO TO 10
      DO WHILE (J.LT.3)
      J=J+1
   10 END DO
      END DO
      END
