      DO I=1,2
      IF (I.EQ.2) GO TO 10
      DO 10 J=1,2
      K=K+1
   10 END DO
      END DO
      END
