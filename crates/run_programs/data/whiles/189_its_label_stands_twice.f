   10 DO WHILE (I.LT.3)
      I=I+1
   10 END DO
      END
