      INTEGER A(3)
      DATA A/2*0/
      END
