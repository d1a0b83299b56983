      INTEGER A(8),E(3,4)
      A(1)=1
      DO 10 I=1,7
   10 A(I+1)=A(I)*3
      WRITE (6,9) A
      DO 20 I=8,2,-1
   20 A(I)=A(I)-A(I-1)
      WRITE (6,9) A
      DO 30 I=1,8
   30 A(3)=A(3)+A(I)
      WRITE (6,9) A
      DO 40 J=1,3
      DO 40 I=1,3
   40 E(I,J+1)=E(I,J)+I
      WRITE (6,9) E
    9 FORMAT (8I6)
      END
