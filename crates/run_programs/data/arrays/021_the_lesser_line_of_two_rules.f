      INTEGER A(2)
      I=N(1)
      A=0
      END
