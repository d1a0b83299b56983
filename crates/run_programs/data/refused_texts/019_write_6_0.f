      WRITE(6,0)
      END
