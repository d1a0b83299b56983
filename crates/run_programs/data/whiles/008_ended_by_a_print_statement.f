      DO 10 WHILE (I.LT.3)
      I=I+1
   10 PRINT 20,I,I*I
   20 FORMAT (2I4)
      END
