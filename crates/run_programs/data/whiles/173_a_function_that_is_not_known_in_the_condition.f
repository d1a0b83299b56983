      DO WHILE (N(I).LT.3)
      I=I+1
      END DO
      END
