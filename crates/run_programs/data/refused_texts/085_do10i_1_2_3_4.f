      DO10I=1,2,3,4
      END
