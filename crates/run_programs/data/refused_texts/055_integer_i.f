      INTEGER,I
      END
