      ELSE
      END
