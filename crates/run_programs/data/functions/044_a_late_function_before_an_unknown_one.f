      I=1
      M(J)=J
      I=K(1)
      END
