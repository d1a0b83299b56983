      DO I=1,4
      DO J=I,2*I-1
      DO K=J,I,-1
      N=N+K
      END DO
      END DO
      WRITE (6,10) I,J,K,N
      END DO
   10 FORMAT (4I4)
      END
