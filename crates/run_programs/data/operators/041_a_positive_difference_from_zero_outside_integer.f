      I=-2147483647-1
      J=DIM(0,I)
      END
