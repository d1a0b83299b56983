      INTEGER A(N)
      PARAMETER (N=3)
      END
