      I=3**21
      END
