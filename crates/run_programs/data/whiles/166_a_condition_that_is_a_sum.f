      I=1
      DO WHILE (I+1)
      END DO
      END
