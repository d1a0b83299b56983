      DO10WHILE(I)=1,2
      END
