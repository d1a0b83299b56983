      WRITE(6,000001)
      END
