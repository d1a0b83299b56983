      INTEGER A(3)
      M(A)=A(1)
      END
