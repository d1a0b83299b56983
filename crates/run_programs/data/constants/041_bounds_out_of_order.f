      INTEGER A(3:2)
      END
