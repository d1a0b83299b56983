      INTEGER A(3)
      DATA A(2)/1/
      I=1
      DATA A/3*0/
      END
