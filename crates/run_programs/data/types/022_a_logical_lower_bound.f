      INTEGER A(1.EQ.1:3)
      END
