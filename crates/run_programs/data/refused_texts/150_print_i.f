      PRINT*,I
      END
