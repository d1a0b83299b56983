      DO10I=1,
      END
