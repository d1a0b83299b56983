      INTEGER A(3)
      I=A(1,2)+J(1)
      END
