      DO 20 I=1,3
   10 J=J+1
   20 CONTINUE
      IF (J.EQ.1) GO TO 10
      END
