      ITWO(N)=2*LAST(N)
      END
