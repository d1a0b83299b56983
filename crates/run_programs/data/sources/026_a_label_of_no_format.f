      WRITE (6,10)
      END
