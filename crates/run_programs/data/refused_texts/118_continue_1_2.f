      CONTINUE=1,2
      END
