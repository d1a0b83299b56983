      A(1,)=2
      END
