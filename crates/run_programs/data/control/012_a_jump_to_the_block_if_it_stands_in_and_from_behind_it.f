   10 IF (I.LT.3) THEN
      I=I+1
      GO TO 10
      ELSE IF (I.LT.5) THEN
      I=I+2
      ELSE
      GO TO 20
      END IF
      J=J+1
      GO TO 10
   20 WRITE (6,30) I,J
   30 FORMAT (2I4)
      END
