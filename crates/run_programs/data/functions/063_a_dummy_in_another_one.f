      N(I,I+1)=I
      END
