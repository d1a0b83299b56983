      I=MAX(1,2,3.EQ.4)
      END
