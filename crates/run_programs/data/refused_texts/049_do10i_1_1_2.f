      DO10I(1)=1,2
      END
