      I=J
      I=J(1)
      END
