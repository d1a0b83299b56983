      DATA X(1)/1/
      X(I)=1
      END
