      ELSE
      INTEGER M
      END
