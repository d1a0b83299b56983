      INTEGER A(40),B(40)
      DO I=1,40
      A(I)=I*I-7*I
      END DO
      DO 10 I=1,40
      B(41-I)=A(I)+I
   10 END DO
      WRITE (6,20) A,B
   20 FORMAT (10I6)
      END
