      I=1
      INTEGER A(2)
      END
