      INTEGER A(12)
      DATA A/0,11*2147483647/
      DO 10 I=1,11
      J=A(I)+1
   10 A(I+1)=I
      WRITE (6,20) I,J,A(12)
   20 FORMAT (3I3)
      END
