      N=5
   10 DO WHILE (I.LT.N)
      I=I+1
      J=J+I
      END DO
      WRITE (6,20) I,J
      N=N+3
      IF (N.LT.12) GO TO 10
   20 FORMAT (2I4)
      END
