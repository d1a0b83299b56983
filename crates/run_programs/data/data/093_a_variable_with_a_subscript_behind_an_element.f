      INTEGER A(2)
      DATA A(1)/1/,J(1)/2/
      J=1
      END
