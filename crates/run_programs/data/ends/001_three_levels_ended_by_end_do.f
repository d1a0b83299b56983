      INTEGER A(2,3,4)
      DO I=1,2
      DO J=1,3
      DO K=1,4
      A(I,J,K)=100*I+10*J+K
      END DO
      END DO
      END DO
      WRITE (6,10) A,I,J,K
   10 FORMAT (6I4)
      END
