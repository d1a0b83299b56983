      STOP 99999
      END
