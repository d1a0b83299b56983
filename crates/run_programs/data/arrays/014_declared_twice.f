      INTEGER A(2)
      INTEGER A
      END
