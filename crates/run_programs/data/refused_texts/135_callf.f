      CALLF
      END
