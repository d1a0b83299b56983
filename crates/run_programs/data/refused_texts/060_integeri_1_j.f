      INTEGERI(1)J
      END
