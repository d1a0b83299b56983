      I=3
      GO TO (10,10),I/J
   10 END
