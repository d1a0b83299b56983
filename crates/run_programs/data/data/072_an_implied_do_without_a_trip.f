      INTEGER A(3)
      DATA (A(I),I=2,1)/1/
      END
