      DATA I/0*5,1/
      END
