      IF (I.EQ.1) THEN
      DO 10 J=1,3
   10 K=K+1
      ELSE
      IF (K) 20,10,20
   20 K=2
      END IF
      END
