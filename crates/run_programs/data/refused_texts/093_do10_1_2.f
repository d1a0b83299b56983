      DO10=1,2
      END
