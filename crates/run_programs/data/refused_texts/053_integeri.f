      INTEGERI,
      END
