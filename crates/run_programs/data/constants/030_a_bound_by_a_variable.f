      INTEGER A(N)
      N=3
      END
