      INTEGERI:2
      END
