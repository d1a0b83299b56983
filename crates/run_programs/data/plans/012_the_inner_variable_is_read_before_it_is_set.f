      INTEGER A(6)
      DO 20 I=1,6
      A(I)=J
      DO 10 J=1,I
   10 CONTINUE
   20 CONTINUE
      WRITE (6,30) I,J,A
   30 FORMAT (8I3)
      END
