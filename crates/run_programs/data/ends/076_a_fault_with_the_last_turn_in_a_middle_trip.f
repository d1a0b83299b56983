C TURNS 9
C     DO 1; TWO TRIPS OF 3; THE ASSIGNMENTS OF THE THIRD: 1+6+2.
      DO I=1,5
      K=K+1
      L=9/(3-I)
      END DO
      END
