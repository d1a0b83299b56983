      DATA K(1)/1/
      END
