      END
      DIMENSION A(9)
