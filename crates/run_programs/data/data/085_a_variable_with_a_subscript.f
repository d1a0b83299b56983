      J=1
      DATA J(1)/1/
      END
