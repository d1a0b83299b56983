      DATA/1/
      END
