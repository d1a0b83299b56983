      INTEGER F(30)
      F(1)=1
      F(2)=1
      DO I=3,30
      F(I)=F(I-1)+F(I-2)
      END DO
      WRITE (6,10) I,F
   10 FORMAT (I4/(6I8))
      END
