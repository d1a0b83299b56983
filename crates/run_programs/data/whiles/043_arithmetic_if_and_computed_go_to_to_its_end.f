      DO 10 WHILE (I.LT.12)
      I=I+1
      IF (MOD(I,5)-2) 10,20,30
   20 J=J+100
   30 GO TO (40,10),MOD(I,3)+1
      J=J+1
   40 J=J+10
   10 END DO
      WRITE (6,50) I,J
   50 FORMAT (2I5)
      END
