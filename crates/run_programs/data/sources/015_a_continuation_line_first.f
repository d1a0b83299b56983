     1+2
      END
