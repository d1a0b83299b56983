      DATA(A(I),I=1)/1/
      END
