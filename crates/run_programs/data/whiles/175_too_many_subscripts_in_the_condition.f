      LOGICAL L(3)
      DO WHILE (L(1,2))
      END DO
      END
