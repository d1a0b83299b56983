      DO 10 WHILE(L)
20    END DO
      END
