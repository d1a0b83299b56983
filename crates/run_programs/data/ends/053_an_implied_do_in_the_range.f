      INTEGER A(3,3)
      DO I=1,3
      DO J=1,3
      A(I,J)=I-J
      END DO
      WRITE (6,10) (A(I,K),K=1,J-1)
      END DO
   10 FORMAT (3I3)
      END
