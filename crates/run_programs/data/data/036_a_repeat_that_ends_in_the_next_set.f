      DATA I/2*1/,J/2/
      END
