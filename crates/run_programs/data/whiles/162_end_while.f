      DO WHILE (I.LT.3)
      I=I+1
      END WHILE
      END
