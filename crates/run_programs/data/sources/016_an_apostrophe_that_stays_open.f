      I='A
      END
