      INTEGER A(3)
      DATA A/3*0/,A(2)/1/
      END
