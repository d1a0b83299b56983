      I=0**0
      END
