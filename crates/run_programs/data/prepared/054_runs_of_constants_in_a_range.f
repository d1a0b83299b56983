      IMPLICIT INTEGER (A-Z)
      INTEGER A(9),B(9),C(9),D(9)
      J=3
      DO 20 I=1,9
      A(I)=I+1-I*2+I-3+I*1-4+5-I+6*7-8+9-I+10*2-11+12-13+I-14+15-I
     1+16-I/17
      B(I)=I*J-2147483647-1+8
      C(I)=I*J+2147483620-2147483647+J*J-6*(7-9)
      D(I)=I*J/2-8*9/5+10-(11-12)
   20 CONTINUE
      WRITE (6,30) A,B,C,D
   30 FORMAT (9I12)
      END
