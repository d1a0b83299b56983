      INTEGER A(3)
      DATA A(NEXT(1))/1/
      END
