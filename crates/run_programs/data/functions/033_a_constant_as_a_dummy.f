      M(1)=3
      END
