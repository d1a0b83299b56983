      PARAMETER (NOUT=6)
      WRITE (NOUT,10) 1
      WRITE (2*NOUT-6,10) 2
      WRITE (2+4,10) 3
      WRITE (UNIT=(NOUT),FMT=10) 4
      WRITE (*,10) 5
   10 FORMAT (I3)
      END
