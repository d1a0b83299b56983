      INTEGER L(X(1))
      END
