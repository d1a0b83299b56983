C TURNS 3
C     THE TEST 1, THE ASSIGNMENTS BEFORE AND BEHIND.
      I=1
      DO WHILE (I.EQ.0)
      J=J+1
      END DO
      J=5
      END
