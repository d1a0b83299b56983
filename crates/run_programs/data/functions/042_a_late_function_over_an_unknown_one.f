      I=1
      M(J)=N(J)
      END
