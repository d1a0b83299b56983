      I=1
      I=N()
      END
