      I=1/J
      STOP
      END
