      I=MAX(3,2**31,1/K)
      END
