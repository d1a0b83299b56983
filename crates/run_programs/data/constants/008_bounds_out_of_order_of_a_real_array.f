      DIMENSION X(3:2)
      END
