      INTEGER A(3)
      DATA A(.TRUE.)/1/
      END
