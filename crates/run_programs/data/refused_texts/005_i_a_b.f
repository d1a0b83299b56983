      I=A*-B
      END
