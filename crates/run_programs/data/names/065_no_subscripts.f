      INTEGER A(3)
      I=A()
      END
