      PARAMETER (N=3)
      INTEGER A(0:N*N)
      DATA (A(N*I-N),A(N*I-1),I=1,N)/1,2,3,4,5,6/,A(N**2)/7/
      WRITE (6,10) A
   10 FORMAT (10I2)
      END
