      A=2**-3
      END
