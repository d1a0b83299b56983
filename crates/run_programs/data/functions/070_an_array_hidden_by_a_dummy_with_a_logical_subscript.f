      INTEGER J(2)
      I(J)=J(.TRUE.)
      END
