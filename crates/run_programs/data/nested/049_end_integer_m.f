      END
      INTEGER M
