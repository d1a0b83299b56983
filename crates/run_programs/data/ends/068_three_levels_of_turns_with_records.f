C TURNS 30
C     DO K 1+2*2=5, DO J 1+2*(5+1)=13, DO I 1+2*(13+1)=29, WRITE 1.
      DO I=1,2
      DO J=1,2
      DO K=1,2
      N=N+1
      END DO
      END DO
      END DO
      WRITE (6,10) I,J,K,N
   10 FORMAT (4I3)
      END
