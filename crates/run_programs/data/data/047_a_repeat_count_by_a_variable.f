      DATA I/J*5/
      END
