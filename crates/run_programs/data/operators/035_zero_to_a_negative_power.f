      I=K**(-3)
      END
