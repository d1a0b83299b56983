      INTEGER A(3)
      DATA A(IABS(-1))/1/
      END
