      INTEGER D,A(9)
      DO 10 I=1,9
      IF (I.EQ.1) D=2
      IF (I.EQ.9) A(9)=8/D
   10 CONTINUE
      WRITE (6,20) A(9),D
   20 FORMAT (2I3)
      END
