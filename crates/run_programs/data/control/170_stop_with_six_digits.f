      STOP 123456
      END
