      I=1
      GO TO 20
      GO TO 10
      END
