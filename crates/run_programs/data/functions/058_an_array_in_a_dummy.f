      INTEGER A(3)
      N(A+1)=1
      END
