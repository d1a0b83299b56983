      J=1
      DIMENSION A(9)
      END
