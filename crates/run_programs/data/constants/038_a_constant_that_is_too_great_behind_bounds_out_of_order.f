      INTEGER A(2:1)
      I=2147483648
      END
