      INTEGER A(3)
      A(0)=5
      END
