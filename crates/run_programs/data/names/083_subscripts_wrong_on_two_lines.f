      INTEGER A(3)
      I=A(1,2)
      I=A()
      END
