      INTEGER A(12)
      DO 10 I=1,12
      A(I)=1
      GO TO 20
   10 CONTINUE
   20 WRITE (6,30) I,A(1),A(2),A(12)
   30 FORMAT (4I3)
      END
