      I=2147483647
      GO TO (10,20),I
      J=-I-1
      GO TO (10,20) J
      WRITE (6,30) I,J
      GO TO 20
   10 WRITE (6,30) 1
   20 WRITE (6,30) 2
   30 FORMAT (2I12)
      END
