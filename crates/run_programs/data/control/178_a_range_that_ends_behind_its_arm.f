      IF (I.EQ.1) THEN
      DO 10 J=1,3
      K=K+1
      END IF
   10 CONTINUE
      END
