      I=2**.FALSE.
      END
