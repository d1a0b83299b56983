      ELSE
