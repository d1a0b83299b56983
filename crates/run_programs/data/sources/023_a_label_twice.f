   10 I=1
   10 J=1
      END
