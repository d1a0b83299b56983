      INTEGER A(12)
      DATA A/12*1/
      DO 10 I=1,11
      J=1/A(I)
   10 A(I+1)=4-I
      END
