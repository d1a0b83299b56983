      INTEGER A(3)
      A()=1
      END
