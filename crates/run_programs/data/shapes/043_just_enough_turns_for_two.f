C TURNS 42
      INTEGER A(20),B(20)
      DO 10 I=1,20
      A(I)=I
   10 B(I)=A(I)*2
      WRITE (6,9) A(1),B(20),I
    9 FORMAT (3I3)
      END
