      INTEGER A(-4:25)
      DATA A/5*1,25*0/
      DO 10 I=1,25
      A(I)=A(I-5)+I
   10 END DO
      WRITE (6,20) A
   20 FORMAT (10I5)
      END
