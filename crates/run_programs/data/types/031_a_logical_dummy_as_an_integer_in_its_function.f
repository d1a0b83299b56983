      LOGICAL P
      ITWO(P)=2*P
      END
