      I=(1)2
      END
