      PAUSE
      END
