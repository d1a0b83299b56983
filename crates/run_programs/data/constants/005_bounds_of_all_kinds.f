      PARAMETER (N=2)
      INTEGER A(1),B(5:5),C(-3:-2),D(0:0,N),E(-N+1:N-1)
      A(1)=1
      B(5)=2
      C(-3)=3
      D(0,2)=4
      E(0)=5
      WRITE (6,10) A,B,C,D,E
   10 FORMAT (9I2)
      END
