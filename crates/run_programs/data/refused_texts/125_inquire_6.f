      INQUIRE(6)
      END
