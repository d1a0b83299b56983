      DO10I=1,2=3
      END
