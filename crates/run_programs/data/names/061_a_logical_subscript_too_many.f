      INTEGER A(3)
      I=A(1,.TRUE.)
      END
