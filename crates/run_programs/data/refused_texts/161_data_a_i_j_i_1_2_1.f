      DATA(A(I),J,I=1,2)/1/
      END
