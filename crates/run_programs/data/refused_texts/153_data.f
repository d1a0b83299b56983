      DATA
      END
