      DATA J/3/
      DATA I/J/
      END
