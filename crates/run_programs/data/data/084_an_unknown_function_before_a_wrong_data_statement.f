      I=J(1)
      DATA I/1,2/
      END
