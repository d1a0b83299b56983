      GO TO 10
   10 M(J)=J
      END
