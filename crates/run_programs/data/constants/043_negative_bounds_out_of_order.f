      INTEGER A(5),B(2,-2:-3)
      END
