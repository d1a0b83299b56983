      LOGICAL L,M
      DO WHILE (L.EQ.M)
      END DO
      END
