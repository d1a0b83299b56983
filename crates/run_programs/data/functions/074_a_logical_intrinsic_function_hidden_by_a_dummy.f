      LOGICAL ABS
      I(ABS)=ABS(1)
      END
