C TURNS 17
C     THE INNER DO 1+3*2, WITH THE OUTER END DO 8; 1+2*8.
      DO I=1,2
      DO J=1,3
      K=K+1
      END DO
      END DO
      END
