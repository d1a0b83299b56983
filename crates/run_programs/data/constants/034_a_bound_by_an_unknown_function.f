      INTEGER A(J(1))
      END
