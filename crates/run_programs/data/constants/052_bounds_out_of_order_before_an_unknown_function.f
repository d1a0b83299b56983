      INTEGER A(2:1)
      I=J(1)
      END
