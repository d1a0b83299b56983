      I=3)
      END
