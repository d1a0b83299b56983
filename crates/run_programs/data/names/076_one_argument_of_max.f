      I=MAX(1)
      END
