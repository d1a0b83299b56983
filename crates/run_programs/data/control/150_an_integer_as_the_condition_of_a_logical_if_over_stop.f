      IF (MOD(5,2)) STOP
      END
