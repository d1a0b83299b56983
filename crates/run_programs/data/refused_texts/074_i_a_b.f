      I=(A,B)
      END
