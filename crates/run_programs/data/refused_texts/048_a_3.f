      (A)=3
      END
