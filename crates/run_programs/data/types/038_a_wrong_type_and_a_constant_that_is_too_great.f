      I=.TRUE.+2147483648
      END
