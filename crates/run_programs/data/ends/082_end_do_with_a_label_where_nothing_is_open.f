      I=1
   10 END DO
      END
