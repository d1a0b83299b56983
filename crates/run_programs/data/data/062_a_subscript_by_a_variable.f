      INTEGER A(3)
      DATA A(I)/1/
      END
