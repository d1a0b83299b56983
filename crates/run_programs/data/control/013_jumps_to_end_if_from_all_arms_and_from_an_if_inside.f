      DO 20 I=1,4
      IF (I.EQ.1) THEN
      GO TO 10
      ELSE IF (I.EQ.2) THEN
      IF (J.EQ.0) THEN
      GO TO 10
      END IF
      J=J+10
      ELSE
      IF (I.EQ.3) GO TO 10
      J=J+100
   10 END IF
   20 J=J+1
      WRITE (6,30) J
   30 FORMAT (I4)
      END
