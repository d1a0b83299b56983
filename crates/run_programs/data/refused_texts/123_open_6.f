      OPEN(6)
      END
