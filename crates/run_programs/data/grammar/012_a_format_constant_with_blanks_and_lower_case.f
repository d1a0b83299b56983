      PRINT '( i 3 , ''a B'' )',7
      END
