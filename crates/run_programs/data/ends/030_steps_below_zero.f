      INTEGER A(9)
      DO I=9,1,-1
      A(I)=K
      K=K+I
      END DO
      DO 10 J=10,-10,-7
      K=K+J
   10 END DO
      WRITE (6,20) A,I,J,K
   20 FORMAT (12I4)
      END
