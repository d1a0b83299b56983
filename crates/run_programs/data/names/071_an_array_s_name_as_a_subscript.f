      INTEGER A(3)
      I=A(A)
      END
