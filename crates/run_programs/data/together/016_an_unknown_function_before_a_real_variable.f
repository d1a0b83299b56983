      J=I(1)
      X=1
      END
