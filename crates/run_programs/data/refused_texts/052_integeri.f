      INTEGERI()
      END
