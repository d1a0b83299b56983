      DO WHILE=1,2
      END DO
      END
