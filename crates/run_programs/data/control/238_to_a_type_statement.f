   10 INTEGER A(2)
      GO TO 10
      END
