      PARAMETER (J=1)
      I(J)=J(1)
      END
