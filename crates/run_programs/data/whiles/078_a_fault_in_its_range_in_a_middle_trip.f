      INTEGER A(20)
      DO I=1,30
      N=I
      DO WHILE (N.GT.0)
      N=N-5
      A(I+1)=A(I+1)+N
      END DO
      END DO
      END
