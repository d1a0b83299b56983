      LOGICAL L(6)
      DO 10 I=-1,1
      L(1)=I.LT.0
      L(2)=I.LE.0
      L(3)=I.EQ.0
      L(4)=I.NE.0
      L(5)=I.GE.0
      L(6)=I.GT.0
   10 WRITE (6,20) I,L
   20 FORMAT (I3,6L2)
      END
