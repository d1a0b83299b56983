      DO WHILE(L)
      END DO
      END DO
      END
