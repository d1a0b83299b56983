      I=J(1)+X
      END
