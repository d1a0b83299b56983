      DATA-I/1/
      END
