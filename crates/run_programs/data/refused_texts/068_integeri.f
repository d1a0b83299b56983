      INTEGERI(*)
      END
