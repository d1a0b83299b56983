      LOGICAL L,M
      L=L.EQ.M
      END
