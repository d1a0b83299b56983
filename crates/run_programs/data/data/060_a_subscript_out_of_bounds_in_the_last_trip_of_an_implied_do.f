      INTEGER A(3)
      DATA (A(I),I=1,4)/4*1/
      END
