      GO TO 10
   10 DATA I/1/
      END
