      INTEGER A(N)
      END
