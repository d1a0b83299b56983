      INTEGER A(2:4,0:1)
      LOGICAL L(2:4,0:1)
      DO 10 J=0,1
      DO 10 I=2,4
      L(I,J)=MOD(I+J,2).EQ.0
   10 A(I,J)=10*I+J
      WRITE (6,20) A
      WRITE (6,20) A(2,0),A(3,0),A(4,0),A(2,1),A(4,1)
      WRITE (6,30) L
      WRITE (6,30) L(2,0),L(3,0),L(4,0),L(2,1),L(4,1)
   20 FORMAT (6I3)
   30 FORMAT (6L2)
      END
