      I=1
      I=N(1)
      I=M(1)
      END
