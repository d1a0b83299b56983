C     THE FIRST TWENTY FIBONACCI NUMBERS.
      I=0
      J=1
      DO 10 N=1,20
      WRITE (6,20) N,J
      K=I+J
      I=J
      J=K
   10 CONTINUE
   20 FORMAT (I4,I8)
      END
