      LOGICAL MAX
      MAX(I,J)=I.GT.J
      WRITE (6,10) MAX(2,1),MAX(1,2)
   10 FORMAT (2L2)
      END
