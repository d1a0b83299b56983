      SUBROUTINEF(X)
      END
