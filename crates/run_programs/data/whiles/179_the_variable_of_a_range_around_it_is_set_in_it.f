      DO I=1,5
      DO WHILE (I.LT.3)
      I=I+1
      END DO
      END DO
      END
