      DATA I,J/1/
      END
