      DO I=1,100
      END DO
      DO 10 J=100,1,-1
   10 END DO
      DO K=1,3
      DO L=1,3
      END DO
      END DO
      WRITE (6,20) I,J,K,L
   20 FORMAT (4I4)
      END
