      DOWHILEI
      END
