      INTEGER A(3)
      A(1)=1
      I=A+1
      END
