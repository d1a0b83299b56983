      IADD(N)=N+K
      K=5
      I=IADD(1)
      K=7
      WRITE (6,10) I,IADD(1)
   10 FORMAT (2I3)
      END
