      DATA(I,I=1,2)/1,2/
      END
