      PRINT
      END
