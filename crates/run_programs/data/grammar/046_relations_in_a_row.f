      L=I.LT.J.LT.K
      END
