      I=ABS(1,2)
      END
