      GO TO 10
      I=J+
      END
