      DATA I/1/
      DATA I/2/
      END
