      CHARACTER*5C
      END
