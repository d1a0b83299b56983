      I=1
      IF (I.EQ.1) DO WHILE (I.LT.3)
      I=I+1
      END DO
      END
