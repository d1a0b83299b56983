      I=3=4
      END
