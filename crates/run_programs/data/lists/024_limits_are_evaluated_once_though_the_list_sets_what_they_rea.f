      N=3
      M=1
      WRITE (6,10) ((I,(N,N=9,9),M=5,5),I=1,N,M),I,N,M
   10 FORMAT (9I3)
      END
