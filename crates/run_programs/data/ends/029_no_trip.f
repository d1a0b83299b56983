      INTEGER A(3)
      DO I=7,3
      A(1)=1
      END DO
      DO 10 J=3,7,-1
      A(2)=1
   10 END DO
      DO K=1,0
      DO L=1,2
      A(3)=1
      END DO
      END DO
      WRITE (6,20) A,I,J,K,L
   20 FORMAT (7I3)
      END
