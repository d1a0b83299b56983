      DO0WHILE(I)
      END
