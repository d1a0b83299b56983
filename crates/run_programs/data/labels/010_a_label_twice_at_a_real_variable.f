   10 I=1
   10 X=1
      END
