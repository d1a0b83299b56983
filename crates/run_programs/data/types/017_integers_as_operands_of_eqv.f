      LOGICAL L
      L=I.EQV.J
      END
