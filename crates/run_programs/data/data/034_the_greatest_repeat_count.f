      INTEGER A(3)
      DATA A/2147483647*1/
      END
