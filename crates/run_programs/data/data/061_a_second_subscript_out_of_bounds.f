      INTEGER A(6,2)
      DATA A(1,3)/1/
      END
