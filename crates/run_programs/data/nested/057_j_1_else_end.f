      J=1
      ELSE
      END
