      EQUIVALENCE(A,B)
      END
