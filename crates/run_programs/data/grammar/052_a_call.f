      CALL F(1)
      END
