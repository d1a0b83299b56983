      INTEGER A(9)
      DATA (A(I),I=1,9,2)/5*1/
      DATA (A(I),I=2,6,2)/3*2/,(A(I),I=6,8)/3*3/
      END
