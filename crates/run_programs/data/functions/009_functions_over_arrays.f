      INTEGER A(3),ELEM
      DATA A/7,8,9/
      ELEM(I)=A(I)
      LAST(I)=ELEM(ELEM(I)-5)
      WRITE (6,10) ELEM(1),LAST(1),A(ELEM(2)-5)
   10 FORMAT (3I2)
      END
