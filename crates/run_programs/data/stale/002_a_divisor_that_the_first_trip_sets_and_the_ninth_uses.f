      INTEGER D
      DO 10 I=1,12
      IF (I.EQ.1) D=3
      IF (I.EQ.9) J=12/D
   10 CONTINUE
      WRITE (6,20) I,J
   20 FORMAT (2I3)
      END
