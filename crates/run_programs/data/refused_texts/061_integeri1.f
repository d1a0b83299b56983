      INTEGERI1)
      END
