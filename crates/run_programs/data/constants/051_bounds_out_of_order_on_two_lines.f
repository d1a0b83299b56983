      PARAMETER (N=1)
      INTEGER A(2:N)
      INTEGER B(3:N)
      END
