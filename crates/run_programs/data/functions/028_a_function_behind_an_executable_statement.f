      I=1
      M(J)=J
      END
