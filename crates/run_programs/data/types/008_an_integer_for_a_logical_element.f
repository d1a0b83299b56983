      LOGICAL L(3)
      L(2)=0
      END
