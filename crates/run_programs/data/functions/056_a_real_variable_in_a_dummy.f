      N(X+1)=1
      END
