C TURNS 2
C     DO 1, THE ASSIGNMENT BEHIND 1.
      DO 10 I=2,1
      J=1
   10 END DO
      J=2
      END
