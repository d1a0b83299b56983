      INTEGER A(2)
      I=A
      END
