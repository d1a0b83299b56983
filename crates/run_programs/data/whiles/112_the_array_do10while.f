      INTEGER DO10WHILE(3)
      I=2
      DO 10 WHILE (I)=7
      DO 10 WHILE (I.LT.5)
   10 I=I+1
      WRITE (6,20) I,DO10WHILE
   20 FORMAT (4I4)
      END
