      INTEGER A(3)
      DATA A()/1/
      END
