      INTEGER A(3)
      I=IABS(A)
      END
