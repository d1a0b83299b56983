      DATA(A(I),I=1,2,3,4)/1/
      END
