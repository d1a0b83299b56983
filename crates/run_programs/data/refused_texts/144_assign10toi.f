      ASSIGN10TOI
      END
