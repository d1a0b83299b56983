      INTEGER A(3),B(3)
      DATA (A(I),I=1,3),B(I)/3*1,2/
      END
