      INTEGER DOWHILE(5)
      I=2
      DOWHILE(I)=3
      DO WHILE (I.LT.5)
      I=I+1
      DO WHILE (I) = DOWHILE(I-1)+I
      END DO
      WRITE (6,10) DOWHILE
   10 FORMAT (5I4)
      END
