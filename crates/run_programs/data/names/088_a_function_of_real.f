      I=SQRT(16)
      END
