      DATA I,J,I/1,2,3/
      END
