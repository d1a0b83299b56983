      INTEGERI(1:2:3)
      END
