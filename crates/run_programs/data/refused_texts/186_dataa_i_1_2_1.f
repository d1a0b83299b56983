      DATAA,I=1,2/1/
      END
