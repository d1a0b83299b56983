      INTEGER A(MAX(1,2))
      END
