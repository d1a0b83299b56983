      INTEGER A(9)
      DO 10 I=2,9
   10 A(I)=A(I-1)+1
      WRITE (6,20) A(9)
   20 FORMAT (I3)
      END
