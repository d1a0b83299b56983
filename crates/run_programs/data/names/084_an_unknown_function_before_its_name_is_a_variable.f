      I=J(2)
      J=1
      END
