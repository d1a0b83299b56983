      I=-2147483647-1
      J=SIGN(I,0)
      END
