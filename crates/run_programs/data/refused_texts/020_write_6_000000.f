      WRITE(6,000000)
      END
