      INTEGERI,,J
      END
