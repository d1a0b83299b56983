   10 PROGRAM P
      GO TO 10
      END
