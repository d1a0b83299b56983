      LOGICAL ABS
      DATA ABS(1)/.TRUE./
      END
