      I=1
      J=I/K
      END
