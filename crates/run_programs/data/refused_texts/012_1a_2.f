      1A=2
      END
