      DO 10 J=1,3
      IF (J.EQ.1) THEN
   10 K=K+1
      END IF
      END
