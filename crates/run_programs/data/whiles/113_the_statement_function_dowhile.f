      INTEGER DOWHILE
      DO WHILE (I)=I*I
      J=1
      DO WHILE (DOWHILE(J).LT.40)
      J=J+1
      END DO
      WRITE (6,10) J,DOWHILE(J)
   10 FORMAT (2I4)
      END
