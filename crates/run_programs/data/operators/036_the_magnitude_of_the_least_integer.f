      I=-2147483647-1
      J=IABS(I)
      END
