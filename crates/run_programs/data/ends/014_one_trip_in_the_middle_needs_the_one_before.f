      INTEGER A(0:20)
      DO I=1,20
      A(I)=I
      IF (I.EQ.11) A(I)=A(I-1)*100
      END DO
      WRITE (6,10) A
   10 FORMAT (7I5)
      END
