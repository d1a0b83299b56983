      DO
     1WHI
     2LE
C     A COMMENT BETWEEN.
     3(I
     4.LT
     5.9)
      I=I+2
      E
     1ND
     2DO
      DO 2
     10,WHILE(I.LT.30)
      I=I+7
   20 CONTINUE
      WRITE (6,10) I
   10 FORMAT (I4)
      END
