      PARAMETER (X=1,X=2)
      END
