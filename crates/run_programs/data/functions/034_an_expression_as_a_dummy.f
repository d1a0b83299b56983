      M(J+1)=J
      END
