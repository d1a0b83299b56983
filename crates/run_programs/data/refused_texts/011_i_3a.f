      I=3A
      END
