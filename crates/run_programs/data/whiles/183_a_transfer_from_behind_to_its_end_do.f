      DO WHILE (I.LT.3)
      I=I+1
   10 END DO
      IF (I.LT.9) GO TO 10
      END
