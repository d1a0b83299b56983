      GO TO 10
      END
