      DO 10 I=1,2
      IF (I.EQ.1) THEN
      K=1
      ELSE
   10 END DO
      END IF
      END
