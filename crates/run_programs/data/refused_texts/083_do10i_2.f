      DO10I=,2
      END
