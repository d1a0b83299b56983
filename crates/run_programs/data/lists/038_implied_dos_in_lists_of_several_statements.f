      INTEGER A(3,3)
      DATA A/1,2,3,4,5,6,7,8,9/
      WRITE (6,10) (I,(A(I,J),J=1,3),I=1,3),I,J
      DO 20 I=1,3
   20 PRINT 10,(A(I,J),J=1,3),(J,J=1,3)
   10 FORMAT (12I3)
      END
