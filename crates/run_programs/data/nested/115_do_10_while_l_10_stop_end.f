      DO 10 WHILE(L)
10    STOP
      END
