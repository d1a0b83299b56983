      STOP ''''
      END
