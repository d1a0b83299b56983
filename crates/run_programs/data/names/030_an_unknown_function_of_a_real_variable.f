      I=N(X)
      END
