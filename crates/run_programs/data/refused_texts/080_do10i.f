      DO10I
      END
