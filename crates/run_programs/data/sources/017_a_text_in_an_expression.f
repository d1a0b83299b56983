      I='A'
      END
