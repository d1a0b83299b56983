      DIMENSION X(3)
      X(1)=1
      END
