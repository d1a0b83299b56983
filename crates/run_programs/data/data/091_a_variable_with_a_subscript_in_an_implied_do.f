      J=1
      DATA (J(I),I=1,2)/2*1/
      END
