      INTEGER A(2,3)
      I=A(1)
      END
