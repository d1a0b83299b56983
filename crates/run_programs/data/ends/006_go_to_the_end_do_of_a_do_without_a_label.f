      INTEGER A(8)
      DO I=1,8
      A(I)=I
      IF (MOD(I,2).EQ.0) GO TO 10
      A(I)=-I
   10 END DO
      WRITE (6,20) I,A
   20 FORMAT (9I4)
      END
