      INTEGER A(3)
      A=0
      END
