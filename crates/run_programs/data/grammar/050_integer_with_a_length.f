      INTEGER*4 I
      END
