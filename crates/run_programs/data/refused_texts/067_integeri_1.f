      INTEGERI(1,)
      END
