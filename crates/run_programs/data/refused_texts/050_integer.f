      INTEGER
      END
