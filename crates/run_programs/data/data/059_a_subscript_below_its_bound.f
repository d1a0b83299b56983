      INTEGER A(0:3)
      DATA A(-1)/1/
      END
