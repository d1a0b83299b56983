      REWIND6
      END
