      I(J)=J(1+.TRUE.)
      END
