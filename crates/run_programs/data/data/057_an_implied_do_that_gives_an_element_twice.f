      INTEGER A(0:9)
      DATA (A(I*I),I=-1,1)/3*1/
      END
