      DO WHILE (J.LT.3)
      J=J+1
      N(I)=I+1
      END DO
      END
