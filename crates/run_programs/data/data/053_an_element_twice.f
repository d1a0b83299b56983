      INTEGER A(3)
      DATA A(1),A(2),A(1)/1,2,3/
      END
