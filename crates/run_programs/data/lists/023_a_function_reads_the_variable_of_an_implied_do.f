      NEXT(N)=N+I
      WRITE (6,10) (NEXT(10),I=1,4),NEXT(10)
   10 FORMAT (5I3)
      END
