C TURNS 9
C     THE FIRST OUTER TRIP ENDS WITH THE NINTH TURN: 1+1+3*2+1.
      DO I=1,2
      DO J=1,3
      K=K+1
      END DO
      END DO
      END
