      LOGICAL L(3)
      DO WHILE (L)
      END DO
      END
