      INTEGER A
      DATA A,B/1,2/
      END
