      M(J)=J(1)
      END
