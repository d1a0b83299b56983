      DO WHILE (MAX(I,1))
      END DO
      END
