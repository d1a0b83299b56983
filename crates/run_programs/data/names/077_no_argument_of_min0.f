      I=MIN0()
      END
