C TURNS 1
      ISQ(I)=I*I
      CONTINUE
      J=ISQ(ISQ(2))+MAX(1,2,3)
      END
