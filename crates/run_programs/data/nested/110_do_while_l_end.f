      DO WHILE(L)
      END
