      N(1)=0
      END
