      END
      STOP
      END
