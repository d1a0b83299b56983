   10 I=1
   10 J=2
      END
