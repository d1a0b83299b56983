      I=(A)=3
      END
