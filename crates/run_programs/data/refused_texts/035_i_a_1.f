      I=A(,1)
      END
