      STOP 0
      END
