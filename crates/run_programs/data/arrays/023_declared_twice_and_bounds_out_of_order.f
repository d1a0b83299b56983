      INTEGER A(3:2),A(1)
      END
