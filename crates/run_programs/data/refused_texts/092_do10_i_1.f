      DO10,I=1
      END
