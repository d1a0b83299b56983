      INTEGER A(3)
      DATA A/2*1,.FALSE./
      END
