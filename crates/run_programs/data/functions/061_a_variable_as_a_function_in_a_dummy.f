      DATA J/1/
      N(J(1))=2
      END
