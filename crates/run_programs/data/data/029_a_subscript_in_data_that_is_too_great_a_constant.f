      INTEGER A(3)
      DATA A(2147483648)/1/
      END
