      INTEGER A(3)
      DATA (A,I=1,1)/3*1/
      END
