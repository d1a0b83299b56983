      DO10(I)=1,2
      END
