      INTEGER A(3),B(2,2)
      I=2147483647
      J=(I-1)+1/K
      END
