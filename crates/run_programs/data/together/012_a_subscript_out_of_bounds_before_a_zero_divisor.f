      INTEGER A(3,3)
      I=A(9,1/K)
      END
