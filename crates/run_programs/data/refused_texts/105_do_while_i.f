      DO,WHILE(I)
      END
