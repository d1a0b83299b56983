C TURNS 10
C     DO 1, AND 3 TRIPS OF 2 ASSIGNMENTS AND END DO: 1+3*3.
      DO I=1,3
      J=I
      K=J
      END DO
      END
