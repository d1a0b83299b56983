      STOP 0 07
      END
