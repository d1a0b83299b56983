      I=5/K
      END
