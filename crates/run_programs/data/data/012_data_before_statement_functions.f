      DATA K/10/
      IADD(N)=N+K
      WRITE (6,10) IADD(5)
   10 FORMAT (I3)
      END
