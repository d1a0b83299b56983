      STOP 'EARLY'
      END
