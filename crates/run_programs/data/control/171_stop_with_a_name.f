      STOP NOW
      END
