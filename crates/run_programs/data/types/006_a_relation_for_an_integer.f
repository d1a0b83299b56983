      I=1
      I=I.EQ.1
      END
