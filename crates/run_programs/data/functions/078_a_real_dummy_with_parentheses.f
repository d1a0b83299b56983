      I(X)=X(1)
      END
