      WHILE(I)
      END
