      INTEGERI(1)(2)
      END
