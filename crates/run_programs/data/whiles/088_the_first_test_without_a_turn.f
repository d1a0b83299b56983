C TURNS 10
      DO I=1,4
      J=J+I
      END DO
      WRITE (6,10) J
      DO WHILE (J.GT.0)
      J=J-1
      END DO
   10 FORMAT (I4)
      END
