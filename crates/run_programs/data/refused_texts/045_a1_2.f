      A1)=2
      END
