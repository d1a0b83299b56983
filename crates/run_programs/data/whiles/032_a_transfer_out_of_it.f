      DO WHILE (.TRUE.)
      I=I+1
      IF (I*I.GT.90) GO TO 10
      J=J+I
      END DO
      J=0
   10 WRITE (6,20) I,J
   20 FORMAT (2I4)
      END
