      INTEGER A(3)
      I=J(1)
      I=A(1,2)
      END
