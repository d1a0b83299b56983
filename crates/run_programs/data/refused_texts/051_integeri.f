      INTEGERI(
      END
