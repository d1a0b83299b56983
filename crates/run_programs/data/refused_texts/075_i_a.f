      I=(A,)
      END
