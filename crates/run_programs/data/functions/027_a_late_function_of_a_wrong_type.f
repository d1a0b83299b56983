      I=1
      M(J)=.TRUE.
      END
