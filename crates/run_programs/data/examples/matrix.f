C     THE PRODUCT OF TWO MATRICES.
      INTEGER A(2,3),B(3,2),C(2,2)
      DO 10 I=1,2
      DO 10 J=1,3
      A(I,J)=10*I+J
   10 B(J,I)=J-I
      DO 30 I=1,2
      DO 30 J=1,2
      C(I,J)=0
      DO 20 K=1,3
   20 C(I,J)=C(I,J)+A(I,K)*B(K,J)
   30 CONTINUE
      WRITE (6,40) C(1,1),C(1,2),C(2,1),C(2,2)
   40 FORMAT (2I5)
      END
