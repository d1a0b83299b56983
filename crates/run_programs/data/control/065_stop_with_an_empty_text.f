      STOP ''
      END
