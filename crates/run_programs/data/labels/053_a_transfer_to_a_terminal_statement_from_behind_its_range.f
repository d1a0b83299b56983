      DO 10 I=1,3
   10 J=J+1
      IF (J.EQ.3) GO TO 10
      END
