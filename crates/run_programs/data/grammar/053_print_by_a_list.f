      PRINT *,I
      END
