      INTEGER A(9)
      DATA A/1,9,7*0/
      DO 10 I=A(1),A(2)
   10 A(I)=I+10
      WRITE (6,20) I,A
   20 FORMAT (10I3)
      END
