C TURNS 11
      INTEGER A(9)
      DO 10 I=1,9
   10 A(I)=I
      WRITE (6,9) A(1),A(9),I
    9 FORMAT (3I3)
      END
