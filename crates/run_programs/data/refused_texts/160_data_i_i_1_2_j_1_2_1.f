      DATA((I,I=1,2),J=1,2)/1/
      END
