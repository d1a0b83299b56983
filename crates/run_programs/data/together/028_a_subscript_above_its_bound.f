      INTEGER A(-1:1)
      A(0)=5
      I=A(2)
      END
