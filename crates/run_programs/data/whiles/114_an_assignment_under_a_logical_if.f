      INTEGER DOWHILE(3)
      I=2
      IF (I.EQ.2) DO WHILE (I)=9
      WRITE (6,10) DOWHILE
   10 FORMAT (3I4)
      END
