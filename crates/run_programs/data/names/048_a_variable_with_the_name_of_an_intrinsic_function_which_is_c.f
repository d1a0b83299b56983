      MIN=1
      I=MIN(5,3)
      END
