      INTEGER A(40)
      K=1
      DO I=1,40
      A(I)=K
      K=K+K
      END DO
      END
