   10 IF (I.LT.3) THEN
      I=I+1
      J=J+I
      GO TO 10
      END IF
      WRITE (6,20) I,J
   20 FORMAT (2I3)
      END
