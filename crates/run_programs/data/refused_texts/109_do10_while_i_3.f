      DO10,WHILE(I)=3
      END
