      I(MAX)=MAX(1)
      END
