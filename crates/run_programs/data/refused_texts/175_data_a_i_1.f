      DATA(A(I))/1/
      END
