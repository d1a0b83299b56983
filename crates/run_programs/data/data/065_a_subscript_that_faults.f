      INTEGER A(0:6)
      DATA (A(6/I),I=0,2)/3*1/
      END
