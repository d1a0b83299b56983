      INTEGER A(0)
      END
