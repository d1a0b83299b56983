      STOP
      INTEGER A(3)
      END
