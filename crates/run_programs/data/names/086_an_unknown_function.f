      I=N(1)
      END
