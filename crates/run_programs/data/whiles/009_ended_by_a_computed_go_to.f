      I=9
      DO 10 WHILE (I.GT.0)
      I=I-2
      J=J+1
   10 GO TO (20,20,30),I
      J=J+100
   20 J=J+200
   30 WRITE (6,40) I,J
   40 FORMAT (2I4)
      END
