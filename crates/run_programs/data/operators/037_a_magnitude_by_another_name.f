      I=-2147483647-1
      J=1+ABS(I)
      END
