      DATA I/1,2/
      I=J(1)
      END
