      STOP
      INTEGER M
      END
