      DATA5/1/
      END
