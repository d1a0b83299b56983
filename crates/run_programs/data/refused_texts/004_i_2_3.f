      I=2*-3
      END
