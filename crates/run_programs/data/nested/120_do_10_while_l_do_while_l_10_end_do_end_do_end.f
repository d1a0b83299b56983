      DO 10 WHILE(L)
      DO WHILE(L)
10    END DO
      END DO
      END
