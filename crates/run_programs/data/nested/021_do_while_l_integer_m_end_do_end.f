      DO WHILE(L)
      INTEGER M
      END DO
      END
