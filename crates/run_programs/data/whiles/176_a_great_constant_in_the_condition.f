      DO WHILE (I.LT.2147483648)
      I=I+1
      END DO
      END
