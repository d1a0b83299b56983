      I=1
C     THE LINE OF A STATEMENT IS ITS INITIAL LINE
      J=I+2+
     1  I+
     2  X
      K=J
      END
