      DATA I/-2147483648/
      END
