      WRITE(6)
      END
