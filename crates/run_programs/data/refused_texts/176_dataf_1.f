      DATAF()/1/
      END
