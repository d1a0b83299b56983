      INTEGER A(3)
      DO WHILE (A(1))
      END DO
      END
