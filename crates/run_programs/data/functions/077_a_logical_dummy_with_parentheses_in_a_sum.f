      LOGICAL J
      I(J)=J(1)+1
      END
