C TURNS 4
C     DO 1, AND 3 TRIPS OF END DO: 1+3.
      DO I=1,3
      END DO
      END
