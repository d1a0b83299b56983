      END
      ELSE
