      INTEGER A(20)
      DO I=1,20
      A(I)=I*I
      IF (A(I).GT.60) GO TO 10
      END DO
      I=-1
   10 WRITE (6,20) I,A
   20 FORMAT (I4/(10I4))
      END
