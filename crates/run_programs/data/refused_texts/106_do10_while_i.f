      DO10,,WHILE(I)
      END
