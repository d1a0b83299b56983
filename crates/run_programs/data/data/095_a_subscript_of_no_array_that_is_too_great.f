      DATA J(2147483648)/1/
      END
