      I=2(1)
      END
