      DO L=1,3
      IF (L.EQ.1) THEN
      DO WHILE (I.LT.5)
      I=I+2
      END DO
      ELSE IF (L.EQ.2) THEN
      DO 10 WHILE (I.LT.20)
   10 I=I+3
      ELSE
      DO 20, WHILE (I.LT.30)
      I=I+4
   20 END DO
      END IF
      WRITE (6,30) L,I
      END DO
   30 FORMAT (2I4)
      END
