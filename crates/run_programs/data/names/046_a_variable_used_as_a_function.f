      J=1
      I=J(2)
      END
