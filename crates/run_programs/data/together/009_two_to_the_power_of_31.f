      I=2**31
      END
