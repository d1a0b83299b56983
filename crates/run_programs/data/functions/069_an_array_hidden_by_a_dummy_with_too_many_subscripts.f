      INTEGER J(2)
      I(J)=J(1,2)
      END
