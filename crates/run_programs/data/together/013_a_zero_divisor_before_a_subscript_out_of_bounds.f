      INTEGER A(3,3)
      I=A(1/K,9)
      END
