      INTEGER B
      DIMENSION B(2,1,1,1,1,1,1,2)
      END
