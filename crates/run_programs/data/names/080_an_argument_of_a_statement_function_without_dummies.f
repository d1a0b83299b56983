      NINE()=9
      I=NINE(1)
      END
