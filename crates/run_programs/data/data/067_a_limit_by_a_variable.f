      INTEGER A(3)
      DATA (A(I),I=1,N)/3*1/
      END
