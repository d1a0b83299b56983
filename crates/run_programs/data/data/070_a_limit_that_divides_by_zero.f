      INTEGER A(3)
      DATA (A(I),I=1,3/0)/3*1/
      END
