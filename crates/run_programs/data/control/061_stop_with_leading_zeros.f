      STOP 0 0 7 0 0
      END
