   10 I=1
      X=2
   10 J=1
      END
