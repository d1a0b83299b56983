      DO WHILE
      END DO
      END
