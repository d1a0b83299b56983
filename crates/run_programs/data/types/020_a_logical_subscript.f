      INTEGER A(3)
      A(.TRUE.)=1
      END
