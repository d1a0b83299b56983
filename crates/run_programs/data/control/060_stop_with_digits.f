      STOP 77
      END
