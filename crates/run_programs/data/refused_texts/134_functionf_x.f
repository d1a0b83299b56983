      FUNCTIONF(X)
      END
