      DO 10 WHILE (I.LT.5)
      I=I+1
      WRITE (6,20) I
   10 END DO
      WRITE (6,20) I+100
   20 FORMAT (I4)
      END
