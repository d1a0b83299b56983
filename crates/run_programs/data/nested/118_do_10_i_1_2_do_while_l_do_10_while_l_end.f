      DO 10 I=1,2
      DO WHILE(L)
      DO 10 WHILE(L)
      END
