      I=1
      N(X+1)=1
      END
