      M(X,X)=1
      END
