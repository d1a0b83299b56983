      INTEGER*4I
      END
