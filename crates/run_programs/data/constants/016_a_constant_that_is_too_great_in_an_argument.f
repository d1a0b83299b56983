      I=MIN(1,2147483648)
      END
