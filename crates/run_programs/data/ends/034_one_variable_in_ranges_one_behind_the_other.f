      DO I=1,3
      K=K+I
      END DO
      DO I=I,I+2
      K=K+10*I
      END DO
      I=I+1
      DO 10 I=I,I+1
      K=K+100*I
   10 END DO
      WRITE (6,20) I,K
   20 FORMAT (2I5)
      END
