      LOGICAL L
      L=0
      I=L
      END
