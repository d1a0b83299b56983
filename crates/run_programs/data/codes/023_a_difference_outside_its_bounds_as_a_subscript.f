      INTEGER A(9),B(9,9)
      I=1
      B(I+8,I)=A(I)+3
      WRITE (6,10) B(I+8,I)
   10 FORMAT (I11)
      I=I-1
      J=B(I+1,I-1)/A(I)
      END
