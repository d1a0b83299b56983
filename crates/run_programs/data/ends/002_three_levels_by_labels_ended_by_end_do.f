      DO 30 I=1,3
      DO 20 J=1,I
      DO 10 K=J,I
      N=N+I*J*K
   10 END DO
      WRITE (6,40) I,J,K,N
   20 END DO
   30 END DO
      WRITE (6,40) I,J,K,N
   40 FORMAT (4I5)
      END
