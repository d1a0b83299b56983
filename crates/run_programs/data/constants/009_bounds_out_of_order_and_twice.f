      INTEGER A(3)
      DIMENSION A(3:2)
      END
