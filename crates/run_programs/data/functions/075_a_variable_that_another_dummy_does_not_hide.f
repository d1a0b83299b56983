      DATA J/1/
      I(K)=J(1)
      END
