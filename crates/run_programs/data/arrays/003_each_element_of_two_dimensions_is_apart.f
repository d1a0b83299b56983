      INTEGER M(2,0:2)
      DO 10 I=1,2
      DO 10 J=0,2
   10 M(I,J)=10*I+J
      WRITE (6,20) M(1,0),M(2,0),M(1,1),M(2,1),M(1,2),M(2,2)
   20 FORMAT (6I3)
      END
