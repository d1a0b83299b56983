      INTEGER A(1,1,1,1,1,1,1,1)
      END
