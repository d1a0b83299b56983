      I=M(1)
      M(J)=J
      END
