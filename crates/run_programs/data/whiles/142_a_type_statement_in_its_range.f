      DO WHILE (I.LT.3)
      INTEGER K
      I=I+1
      END DO
      END
