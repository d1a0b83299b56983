      DO100000I=1,2
      END
