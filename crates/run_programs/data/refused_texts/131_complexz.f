      COMPLEXZ
      END
