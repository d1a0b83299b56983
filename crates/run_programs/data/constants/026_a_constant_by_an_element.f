      INTEGER A(3)
      PARAMETER (N=A(1))
      END
