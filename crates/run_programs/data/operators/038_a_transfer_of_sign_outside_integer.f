      I=-2147483647-1
      J=ISIGN(I,1)
      END
