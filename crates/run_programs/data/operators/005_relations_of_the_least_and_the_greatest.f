      LOGICAL P,Q,R
      I=-2147483647-1
      J=2147483647
      P=I.LT.J
      Q=I.GT.J
      R=I+1.EQ.-J
      WRITE (6,10) P,Q,R,J.GE.I,I.LE.I,J.NE.J
   10 FORMAT (6L2)
      END
