      I
      END
