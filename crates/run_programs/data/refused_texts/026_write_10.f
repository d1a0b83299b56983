      WRITE(,10)
      END
