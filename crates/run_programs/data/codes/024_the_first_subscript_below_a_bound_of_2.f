      INTEGER A(2:4,0:1)
      K=1
      L=0
      WRITE (6,10) K,L
      I=A(K,L)
      WRITE (6,10) I
   10 FORMAT (2I3)
      END
