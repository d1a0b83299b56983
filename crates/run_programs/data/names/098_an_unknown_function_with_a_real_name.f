      I=X(1)
      END
