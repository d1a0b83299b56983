      DO 10 I=1,3
      IF (I.EQ.1) THEN
   10 END IF
      END
