      DO10I=1.5
      END
