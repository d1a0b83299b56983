      I=1)
      END
