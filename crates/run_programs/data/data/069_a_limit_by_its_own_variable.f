      INTEGER A(3)
      DATA (A(I),I=I,3)/3*1/
      END
