      DO WHILE(L)
10    CONTINUE
      END
