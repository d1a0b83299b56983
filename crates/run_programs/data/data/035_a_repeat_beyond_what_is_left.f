      INTEGER A(3)
      DATA A/1,3*2/
      END
