      INTEGER A(20)
      DO 10 I=5,20
   10 A(I)=A(I-4)+1
      WRITE (6,20) A(20)
   20 FORMAT (I3)
      END
