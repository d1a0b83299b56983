      I=MAX(1,LAST(3))
      END
