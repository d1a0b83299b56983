C TURNS 9
C     DO 1; TWO TRIPS OF IF, ASSIGNMENT, END DO; IF, GO TO: 1+6+2.
      DO I=1,9
      IF (I.EQ.3) GO TO 10
      K=K+I
      END DO
      K=0
   10 END
