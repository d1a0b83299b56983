      INTEGER A(2:4,0:1)
      K=2
      L=2
      WRITE (6,10) K,L
      I=A(K,L)
      WRITE (6,10) I
   10 FORMAT (2I3)
      END
