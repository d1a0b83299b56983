      INTEGER A(20)
      DATA A/4*1,16*0/
      DO 10 I=5,20
      A(I)=1
   10 J=1/A(I-4)
      WRITE (6,20) I,J
   20 FORMAT (2I3)
      END
