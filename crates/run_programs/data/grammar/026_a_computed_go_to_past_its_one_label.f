      I=1
      GO TO (10),I+1
   10 CONTINUE
      END
