      DATA J(1)/1/
      J=1
      I=J(1)
      END
