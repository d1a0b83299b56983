      INTEGER A(3)
      DATA A(4)/1/
      END
