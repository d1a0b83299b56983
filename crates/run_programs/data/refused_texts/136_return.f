      RETURN
      END
