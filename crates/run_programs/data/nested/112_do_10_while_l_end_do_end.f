      DO 10 WHILE(L)
      END DO
      END
