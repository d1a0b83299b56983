      LOGICAL GOING
      GOING=.TRUE.
      DO WHILE (GOING)
      I=I+1
      GOING=I.LT.6
      END DO
      WRITE (6,10) I,GOING
   10 FORMAT (I4,L2)
      END
