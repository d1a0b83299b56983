      DO WHILE (1/I.EQ.1.AND.I.EQ.1)
      I=I+1
      END DO
      END
