      I=1
      M(J)=J
      N(J)=J
      END
