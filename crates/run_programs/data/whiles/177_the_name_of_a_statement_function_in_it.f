      LOGICAL L
      L(I)=I.LT.3
      DO WHILE (L)
      END DO
      END
