      I=()
      END
